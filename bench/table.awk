# Joins what bench/run measured into one table. The files, in this order: lists (kind, records, bytes, answer bytes), instructions (kind, records,
# program, instructions of all runs), times and stack (kind, records, proved, second).

FNR == 1 { file++ }
{ at = $1 " " $2 }
file == 1 { list[++n] = at; kind[n] = $1; records[n] = $2; bytes[n] = $3 }
file == 2 { instructions[at, $3] = $4 / runs }
file == 3 { time[at, "proved"] = $3; time[at, "second"] = $4 }
file == 4 { stack[at, "proved"] = $3; stack[at, "second"] = $4 }

function most(a, b) { return a > b ? a : b }

END {
  print "| List | Records | Bytes | Instructions, proved | second | ratio | ns, proved | second | ratio | Stack, proved | second |"
  print "|---|---|---|---|---|---|---|---|---|---|---|"
  for (i = 1; i <= n; i++) row(i)
  print "\nGrowth: instructions for each further record, in the front of a list (from none to 100 records) and behind it (from 100 to the most that fit).\n"
  print "| List | Proved, front | behind | Second, front | behind |"
  print "|---|---|---|---|---|"
  # each kind has three lists behind the one of no records
  for (i = 3; i <= n; i += 3)
    printf "| %s | %.0f | %.0f | %.0f | %.0f |\n", kind[i], slope(1, i, "proved"), slope(i, i + 1, "proved"), slope(1, i, "second"), slope(i, i + 1, "second")
  printf "\nHighest ratio of instructions, of lists with 100 records or more: %.1f (goal: 5). ", ratio
  printf "Deepest stack of the proved run: %.1f KiB (goal: under 64).\n", deepest / 1024
}

function row(i,    a, p, s, tp, ts, per) {
  a = list[i]
  per = records[i] ? records[i] : 1
  p = instructions[a, "proved"]; s = instructions[a, "second"]; tp = time[a, "proved"]; ts = time[a, "second"]
  if (records[i] >= 100) ratio = most(ratio, p / s)
  deepest = most(deepest, stack[a, "proved"])
  printf "| %s | %d | %d | %.0f | %.0f | %.1f | %.0f | %.0f | %.1f | %d | %d |\n", records[i] ? kind[i] : "no records", records[i], bytes[i], p / per, s / per, p / s, tp / per, ts / per, tp / ts, stack[a, "proved"], stack[a, "second"]
}

function slope(from, to, program) {
  return (instructions[list[to], program] - instructions[list[from], program]) / (records[to] - records[from])
}
