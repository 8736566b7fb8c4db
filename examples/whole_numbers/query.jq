json-lines("numbers.jsonl")
