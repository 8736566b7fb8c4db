(: An operand of each kind cast to each type, with and without "?" after the type, and whether it is
   castable. :)
declare variable $names := ("()", "null", "true", "7", "-2.5", "a", "date", "time", "[]", "{}", "two");
declare variable $operands := [
  [], [null], [true], [7], [-2.5], ["a"],
  ["2024-02-29" cast as date], ["2024-02-29T00:00:00" cast as dateTime], [[]], [{}], [null, 7]
];
declare variable $types := ("string", "integer", "decimal", "boolean", "null", "date", "dateTime");
declare variable $widths := (23, 9, 9, 9, 9, 11, 20);

declare function cast_or_none($type, $a) {
  switch ($type)
    case "string" return $a cast as string?
    case "integer" return $a cast as integer?
    case "decimal" return $a cast as decimal?
    case "boolean" return $a cast as boolean?
    case "null" return $a cast as null?
    case "date" return $a cast as date?
    default return $a cast as dateTime?
};

declare function cast_to($type, $a) {
  switch ($type)
    case "string" return $a cast as string
    case "integer" return $a cast as integer
    case "decimal" return $a cast as decimal
    case "boolean" return $a cast as boolean
    case "null" return $a cast as null
    case "date" return $a cast as date
    default return $a cast as dateTime
};

declare function castable_or_none($type, $a) {
  switch ($type)
    case "string" return $a castable as string?
    case "integer" return $a castable as integer?
    case "decimal" return $a castable as decimal?
    case "boolean" return $a castable as boolean?
    case "null" return $a castable as null?
    case "date" return $a castable as date?
    default return $a castable as dateTime?
};

declare function is_castable($type, $a) {
  switch ($type)
    case "string" return $a castable as string
    case "integer" return $a castable as integer
    case "decimal" return $a castable as decimal
    case "boolean" return $a castable as boolean
    case "null" return $a castable as null
    case "date" return $a castable as date
    default return $a castable as dateTime
};

(: A string has quotes round it, and a decimal a "d" after it. :)
declare function marked($result) {
  typeswitch ($result)
    case empty-sequence() return "()"
    case string return "'" || $result || "'"
    case integer return string($result)
    case decimal return $result || "d"
    default return string($result)
};

declare function result($form, $type, $a) {
  switch ($form)
    case "cast ?" return marked(cast_or_none($type, $a))
    case "cast" return marked(cast_to($type, $a))
    case "castable ?" return string(castable_or_none($type, $a))
    default return string(is_castable($type, $a))
};

declare function cell($form, $type, $a) {
  try { result($form, $type, $a) } catch * { $err:code }
};

declare function padded($text, $width) { substring($text || "                         ", 1, $width) };

declare function line($form, $left, $cells) {
  padded($form, 11) || padded($left, 6) || string-join(for $cell at $i in $cells return padded($cell, $widths[$i]))
};

line("", "", $types),
(for $form in ("cast ?", "cast", "castable ?", "castable"), $operand at $i in $operands[]
 return line($form, $names[$i], for $type in $types return cell($form, $type, $operand[])))
