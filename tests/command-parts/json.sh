# shellcheck shell=bash disable=SC2154,SC2016 # tests/command sets the names; some lines are for another shell
# JSON: what show, check and describe print for programs.

# says EXPRESSION: the JSON in the file out, as the name store, makes it true.
says() {
    python3 -c 'import json, sys
store = json.load(open("out"))
sys.exit(0 if eval(sys.argv[1]) else 1)' "$1"
}
gives "show --json" 0 '' "$mritvelja" show whole --json
holds "show --json is one line" test "$(wc -l <out)" -eq 1
holds "show --json: files" says '[f["paths"] for f in store["files"]] == [["/"], ["/fares"], ["/today"], ["/key"], [], ["/log"], ["/log/day"]]'
holds "show --json: open files" says 'store["open_files"] == [{"open_file": 1, "slot": 4, "mode": "read", "offset": 4, "references": 2}]'
holds "show --json: descriptors" says 'store["processes"][2]["descriptors"] == [{"descriptor": 0, "open_file": 1}, {"descriptor": 1, "open_file": 1}]'
holds "show --json: groups and bits" says '(store["files"][3]["group"], store["files"][3]["bits"]) == (1, {"owner": ["read", "write", "execute"], "group": [], "others": []})'
holds "show --json: a link, and where it leads" says '(store["files"][2]["kind"], store["files"][2]["target"], store["files"][2]["length"]) == ("link", "/fares/now", 10)'
holds "show --json: nothing else leads anywhere" says '["target" in f for f in store["files"]].count(True) == 1'
holds "show --json: a process's group" says 'store["processes"][1]["group"] == 1'
holds "show --json: rights" says '{"process_label": 1, "file_label": 3, "rights": ["write"]} in store["rights"]'
holds "show --json: no bytes of files" says 'not any("data" in f for f in store["files"])'
gives "describe --json" 0 '' "$mritvelja" describe --json console
holds "describe --json: the bytes of files" says '[f["data"] for f in store["files"] if f["slot"] == 3] == ["01020304"]'
holds "describe --json: a directory's entries" says 'store["files"][0]["entries"][1] == {"entry": 1, "name": "key", "slot": 3}'
printf 'mritvelja description 2\ntransition 1 by 2 to 3\nfile "/\\x22\\x5c\\x0a\\xff "\nsymlink /l to "/\\x22\\x5c\\x0a\\xff "\nfree 9 version 4294967295\n' | "$mritvelja" new odd-names --from -
gives "describe --json of odd names" 0 '' "$mritvelja" describe --json odd-names
holds "describe --json of odd names: as show has them" says 'store["files"][1]["paths"] == ["/\"\\x5c\\x0a\\xff "]'
holds "describe --json of an odd target" says 'store["files"][2]["target"] == "/\"\\x5c\\x0a\\xff " and "data" not in store["files"][2]'
holds "describe --json: transitions" says 'store["transitions"] == [{"process_label": 1, "program_label": 2, "label": 3}]'
holds "describe --json: free slots" says 'store["free"] == [{"slot": 9, "version": 4294967295}]'
gives "check --json" 0 '{"sound": true}' "$mritvelja" check --json console
cp console damaged
put damaged $((12 + 2 * 32 + 24)) '\002'
gives "check --json of a store that is not sound" 1 '' "$mritvelja" check --json damaged
holds "check --json: the clause and where" says 'store == {"sound": False, "clause": "names equal to the places counted", "where": "slot 2: links is 2, but the directory entries counted are 1"}'
refuses "show --json of a store that is not sound" 'damaged: not sound: ' "$mritvelja" show --json damaged
gives "replay --json" 2 'unknown option: --json' "$mritvelja" replay bus day --json
