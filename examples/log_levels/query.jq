(: how many lines each hour has, and how many of them are of each level :)
for $line in json-lines("log.jsonl")
let $hour := substring(string($line.at cast as dateTime), 1, 13)
group by $hour
order by $hour
return {
  "hour": $hour,
  "lines": count($line),
  "levels": {|
    for $one in $line
    group by $level := if (exists($one.level)) then $one.level else "none"
    order by count($one) descending, $level
    return { $level: count($one) }
  |}
}
