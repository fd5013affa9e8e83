#!/usr/bin/env bash
# Turns the events of another system into a report: ./foreign_to_report.sh < foreign.log
# An event is a time, `KEY=VALUE` words and a name. Events are put in the order of their times, and each becomes a line of the report.
sort -n | awk '
{
    name = ""
    split("", v)
    for (i = 2; i <= NF; i++) {
        at = index($i, "=")
        if (at) v[substr($i, 1, at - 1)] = substr($i, at + 1)
        else name = $i
    }
    if (name == "indexed") words = "accepted " v["op"]
    else if (name == "refresh-start") words = "publishing"
    else if (name == "refresh-end") words = "published " v["generation"] " " v["version"]
    else if (name == "pull-start") words = "copying " v["node"] " " v["version"]
    else if (name == "searcher-swapped") words = "switched " v["node"] " " v["version"]
    else if (name == "pull-end") words = "copied " v["node"] " " v["version"]
    else if (name == "query-start") words = "opened " v["node"] " 0 " v["version"]
    else if (name == "query-end") {
        words = "answer " v["node"] " 0 " v["version"] " " v["total"]
        n = split(v["hits"], hits, ",")
        for (i = 1; i <= n; i++) words = words " " hits[i]
    }
    else words = name
    print v["line"] " " words
}'
