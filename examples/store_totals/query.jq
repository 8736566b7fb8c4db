(: what each store took in, the greatest total first :)
for $sale in json-lines("sales.jsonl")
let $amount := $sale.price * $sale.count
group by $store := $sale.store
order by sum($amount) descending
return {
  "store": $store,
  "sales": count($sale),
  "total": sum($amount),
  "mean": avg($amount),
  "items": [distinct-values($sale.item)]
}
