for $order in json-lines("orders.jsonl")
return $oder.price
