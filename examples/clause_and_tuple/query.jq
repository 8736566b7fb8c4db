(: what one piece of each order costs: one order has no pieces :)
for $order in json-lines("orders.jsonl")
where exists($order.count)
let $each := $order.price div $order.count
order by $each
return { "id": $order.id, "each": $each }
