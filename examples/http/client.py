#!/usr/bin/env python3
"""Asks for the price of parcels: client.py [URL]. First run ./desk http examples/parcel.json."""
import json
import sys
import urllib.error
import urllib.request

url = (sys.argv[1:] or ["http://127.0.0.1:8080"])[0] + "/v1/services/shipping"

def ask(inputs):
    request = urllib.request.Request(url, json.dumps(inputs).encode(), {"X-Client": "shop"})
    try:
        with urllib.request.urlopen(request, timeout=10) as answer:
            return json.load(answer)
    except urllib.error.HTTPError as problem:
        return json.load(problem)

print(ask({"weight": 5, "express": False})["result"])
print([answer["result"] for answer in ask([{"weight": 1, "express": True}, {"weight": 3, "express": True}])])
print(ask({"weight": 1.5})["detail"])
