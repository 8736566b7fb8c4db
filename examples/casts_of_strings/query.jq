(: Strings cast to each type but string: blanks round them are dropped, and no other characters. :)
declare variable $types := ("integer", "decimal", "boolean", "null", "date", "dateTime");

declare function cast_to($type, $a) {
  switch ($type)
    case "integer" return $a cast as integer
    case "decimal" return $a cast as decimal
    case "boolean" return $a cast as boolean
    case "null" return $a cast as null
    case "date" return $a cast as date
    default return $a cast as dateTime
};

(: A string has quotes round it, and a decimal a "d" after it. :)
declare function marked($result) {
  typeswitch ($result)
    case empty-sequence() return "()"
    case string return "'" || $result || "'"
    case integer return string($result)
    case decimal return $result || "d"
    default return string($result)
};

declare function cell($type, $a) {
  try { marked(cast_to($type, $a)) } catch * { $err:code }
};

for $text in json-lines("strings.jsonl")
return [$text, for $type in $types return cell($type, $text)]
