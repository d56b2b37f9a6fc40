#include "commands.h"

int main(int argc, char **argv)
{
    return stm_main(argc, argv);
}
