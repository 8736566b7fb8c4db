json-lines("orders")
