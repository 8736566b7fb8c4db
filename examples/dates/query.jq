(: when each loan was due, after four weeks, and how many days late it came back :)
for $loan in json-lines("loans.jsonl")
where $loan.lent castable as date
let $due := add-days($loan.lent cast as date, 28)
let $back := ($loan.back cast as dateTime?) cast as date?
order by $due
return {
  "book": $loan.book,
  "due": $due,
  "back": $back,
  "late": days-between($due, $back)[$$ gt 0]
}
