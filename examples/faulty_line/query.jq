json-lines("orders.jsonl")
