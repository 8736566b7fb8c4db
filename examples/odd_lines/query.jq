(: what is odd about the value of a reading; nothing about a number :)
declare function oddity($value) {
  typeswitch ($value)
    case decimal return ()
    case empty-sequence() return "no value"
    case $text as string return "the text " || $text
    case null return "null"
    case $list as array return size($list) || " values"
    default $other return "the atomic " || $other
};

for $line at $n in json-lines("readings.jsonl")
let $odd := if ($line instance of object) then oddity($line.value)
            else "no object: " || serialize($line)
where exists($odd)
return { "item": $n, "odd": $odd }
