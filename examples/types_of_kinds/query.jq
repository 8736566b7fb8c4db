(: An item of each kind against each type of items, with its name and, where they may stand, with
   parentheses; and sequences of nulls, with and without another item, against each number of items. :)
declare variable $types := (
  "item", "json-item", "object", "array", "atomic", "string", "integer", "decimal", "boolean", "null",
  "date", "dateTime", "item()", "json-item()", "object()", "array()", "empty-sequence()"
);
declare variable $names := ("{}", "[]", "'null'", "1", "1.0", "false", "null", "date", "time");
declare variable $items := (
  {}, [], "null", 1, 1.0, false, null, "2024-02-29" cast as date, "2024-02-29T00:00:00" cast as dateTime
);

declare function fits($type, $s) {
  switch ($type)
    case "item" return $s instance of item
    case "json-item" return $s instance of json-item
    case "object" return $s instance of object
    case "array" return $s instance of array
    case "atomic" return $s instance of atomic
    case "string" return $s instance of string
    case "integer" return $s instance of integer
    case "decimal" return $s instance of decimal
    case "boolean" return $s instance of boolean
    case "null" return $s instance of null
    case "date" return $s instance of date
    case "dateTime" return $s instance of dateTime
    case "item()" return $s instance of item()
    case "json-item()" return $s instance of json-item()
    case "object()" return $s instance of object()
    case "array()" return $s instance of array()
    case "empty-sequence()" return $s instance of empty-sequence()
    case "null?" return $s instance of null?
    case "null*" return $s instance of null*
    case "null+" return $s instance of null+
    case "string?" return $s instance of string?
    case "string*" return $s instance of string*
    case "string+" return $s instance of string+
    default return $s instance of item*
};

declare function line($s, $types) {
  string-join(for $type in $types return (if (fits($type, $s)) then $type else ()), " ")
};

(for $item at $i in $items return $names[$i] || ": " || line($item, $types)),
(for $s in ([], [null], [null, null], [null, null, null], [null, null, null, []])
 return serialize($s) || ": " || line($s[], (
   "null", "null?", "null*", "null+", "string", "string?", "string*", "string+", "item*", "empty-sequence()"
 )))
