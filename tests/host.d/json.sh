# Objects, one a line
call 0 '{"type":"check","design":"designs/design-a.stm","accepted":true}' check "$a" --json
call 3 '{"type":"refused","command":"check","number":1,"place":15,"meaning":"'"$length_text"'"}
'"refused 1 at 15: $length_text" check "$work/short.stm" --json
call 0 '{"type":"size","design":"designs/design-a.stm","piece":null,"property":0,"bound":3,"S":22,"P":81,"w":3,"G":378,"n":1556,"clauses":5522,"words":20550}' \
    size --json "$a" 0 3
call 3 '{"type":"refused","command":"size","number":13,"place":0,"meaning":"the design has no such property"}
'"refused 13 at 0: $property_text" size "$a" 2 3 --json
call 10 '{"type":"step","step":0,"choice":null,"idle":false,"holds":true,"variables":[32766,-32767],"statuses":[0],"mark":false}
{"type":"step","step":1,"choice":0,"idle":false,"holds":true,"variables":[32767,-32767],"statuses":[0],"mark":false}
{"type":"step","step":2,"choice":0,"idle":false,"holds":false,"variables":[-32768,-32767],"statuses":[0],"mark":true}
{"type":"replay","design":"designs/wrap.stm","piece":null,"property":0,"choices":[0,0],"broken":true,"step":2,"events":2,"guards":2}' \
    replay designs/wrap.stm 0 0,0 --json
call 0 '{"type":"step","step":0,"choice":null,"idle":false,"holds":true,"variables":[],"statuses":[0,0],"mark":false}
{"type":"replay","design":"designs/crossing.stm","piece":"'"$work/true.piece"'","property":0,"choices":[],"broken":false,"step":null,"events":0,"guards":0}' \
    replay designs/crossing.stm 0 - --json --piece "$work/true.piece"
call 10 '{"type":"verdict","design":"designs/design-a.stm","piece":null,"property":0,"bound":3,"budget":37,"verdict":"VIOLATED","at":3,"tries":37,"choices":[2,0,1],"stopped":null}' \
    verdict "$a" 0 3 37 --json
call 0 '{"type":"verdict","design":"designs/design-a.stm","piece":null,"property":0,"bound":2,"budget":null,"verdict":"CLEAN","at":null,"tries":20,"choices":null,"stopped":null}' \
    verdict "$a" 0 2 --json
call 30 '{"type":"verdict","design":"designs/design-a.stm","piece":null,"property":0,"bound":3,"budget":36,"verdict":"SPENT","at":3,"tries":36,"choices":null,"stopped":null}' \
    verdict "$a" 0 3 36 --json
# a name with a quote, a backslash, a control byte, UTF-8 and bytes that are none
cp "$a" "$work/q\"b\\"$'\t\x7f\xc3\xa9\xff\xe2\x82.stm'
call 0 '{"type":"check","design":"'"$work"'/q\"b\\\u0009\u007fé\ufffd\ufffd\ufffd.stm","accepted":true}' check "$work/q\"b\\"$'\t\x7f\xc3\xa9\xff\xe2\x82.stm' --json
call 2 "stm: not a number: x" size "$a" x 1 --json
call 2 "stm: cannot open $work/none: No such file or directory" check "$work/none" --json
