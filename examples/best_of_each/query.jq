(: the three best runs of each class; a run without a time was not finished :)
for $run in json-lines("runs.jsonl")
order by $run.seconds empty greatest, $run.name
group by $class := $run.class
order by $class
return {
  "class": $class,
  "runs": count($run),
  "best": [project(subsequence($run[exists($$.seconds)], 1, 3), ("name", "seconds"))]
}
