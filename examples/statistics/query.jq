json-lines("places.jsonl")
