(: what each customer spent :)
for $order in json-lines("orders.jsonl")
where $order.price instance of decimal
group by $customer := $order.customer
order by $customer
return { "customer": $customer, "spent": sum($order.price) }
