for $order in json-lines("orders.jsonl")
return 1e0 * $order.price
