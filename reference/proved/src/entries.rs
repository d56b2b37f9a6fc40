//! The archive's entries. Nothing checks these declarations against the Rattle source but the tests.

macro_rules! declare {
    ($($name:ident[$(($($parameter:ident: $kind:ty),+))*];)*) => {
        extern "C" {
            $(pub fn $name($($($parameter: $kind),+),*) -> u64;)*
        }
    };
}

reference::entries!(declare);
