declare variable $written := "ABCDEFGHIJKLMNOPQRSTUVWXYZ-_ ";
declare variable $plain := "abcdefghijklmnopqrstuvwxyz";

(: a key in small letters, without strokes and blanks :)
declare function plain($key as string) as string { translate($key, $written, $plain) };

(: the first value that is there and is not null :)
declare function first($values) { flatten($values)[$$ ne null][1] };

for $line in json-lines("people.jsonl")
let $clean := accumulate(keys($line) ! { plain($$): $line.$$ })
return {
  "name": first($clean.name),
  "email": first($clean.email),
  "more": remove-keys($clean, ("name", "email"))
}
