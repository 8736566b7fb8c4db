json-lines("january.jsonl", "february.jsonl", "january.jsonl")
