(: the orders of each customer, and then the orders of no customer; identifiers go by their texts :)
for $customer in json-lines("customers.jsonl")
let $orders := json-lines("orders.jsonl")[string($$.customer) eq string($customer.id)]
return {
  "id": $customer.id,
  "name": $customer.name,
  "orders": [$orders.id],
  "total": sum($orders.total)
},
let $known := json-lines("customers.jsonl").id ! string($$)
return {
  "unknown": [json-lines("orders.jsonl")[not string($$.customer) = $known].id]
}
