echo qid; yes 1 | head -n 4194305
