# Walks of a debugger by chance: steps, `g` and steps back, and behind each the state. A state that is stepped back to is the
# one that was seen there before; and the choices that are left, played by `run`, give the lines and the state of the session.
# Takes the lines `FILE THREADS WALKS COMMANDS`.

# the next number below a bound
function pick(bound) {
  seed = seed * 16807 % 2147483647
  return int(seed / 2147483647 * bound)
}

function token(threads) { return (pick(16) < 3 ? "x" : "t") pick(threads) }

function wrong(what) {
  print file ", walk " number ", command " at ": " what
  failed = 1
}

# one choice more
function choose(choice) { choices[++depth] = choice }

# the next command, what is done by it in mind, and the reply that it has to have: of a step its beginning
function command(threads,   kind, first, times, i) {
  kind = pick(16)
  if (kind < 6) {
    wanted = depth ? "back " (depth - 1) : "no history"
    if (depth) depth--
    return "b"
  }
  if (kind > 6) {
    choose(token(threads))
    wanted = depth " " choices[depth] " "
    return "s " choices[depth]
  }
  first = token(threads)
  times = 1 + pick(4)
  for (i = 0; i < times; i++) choose(first)
  choose("t" pick(threads))
  wanted = "end " (times + 1)
  return "g " first "*" times " " choices[depth]
}

# what lies behind the choices of a `g` isn't seen
function forget(before,   i) {
  for (i = before + 1; i <= depths[at]; i++) {
    delete states[i]
    delete lines[i]
  }
}

# the rest of a state whose first line was read
function state(   text) {
  text = line
  while ((reply | getline line) > 0 && line ~ /^[tpbc][0-9]/) text = text "\n" line
  return text
}

function look() {
  if (at in steps ? index(line, replies[at]) != 1 : line != replies[at]) wrong(line " for " replies[at])
  if (at in steps) {
    lines[steps[at]] = line
    if (line ~ / throw/) throws++
    if (line ~ / unwind/) unwinds++
    if (line ~ / \+p[0-9]+ -/) terminations++
    if (line ~ / \+p[0-9]+ [0-9]/) phases++
    if (line ~ / \+b/) trips++
    if (line ~ / -b/) breaks++
  }
}

{
  file = ENVIRON["top"] "/tests/debug/" $1
  for (number = 1; number <= $3; number++) {
    depth = 0
    seed = number + 1
    delete steps
    delete backs
    session = ""
    for (at = 1; at <= $4; at++) {
      text = command($2)
      session = session text "\np\n"
      replies[at] = wanted
      depths[at] = depth
      if (text ~ /^s/) steps[at] = depth
      if (text ~ /^b/) backs[at] = depth
    }
    left = ""
    for (at = 1; at <= depth; at++) left = left choices[at] " "
    delete states
    delete lines
    printf "%s", session > "session"
    close("session")
    reply = "vuthgal debug " file " < session"
    reply | getline line
    for (at = 1; at <= $4; at++) {
      look()
      reply | getline line
      seen = state()
      if (at in backs && depths[at] in states && states[depths[at]] != seen) wrong("another state than before")
      if (!(at in backs) && !(at in steps)) forget(depths[at - 1])
      states[depths[at]] = seen
    }
    close(reply)
    print left > "session"
    close("session")
    reply = "vuthgal run " file " session"
    reply | getline line
    for (at = 1; at <= depth; at++) {
      if (at in lines && lines[at] != line) wrong(lines[at] ", but `run` says " line)
      reply | getline line
    }
    if (state() != seen) wrong("another state than that of `run`")
    close(reply)
  }
}

END {
  if (throws > 400 && unwinds > 50 && terminations > 100 && phases > 100 && trips > 20 && breaks > 20 && !failed) print "as before"
  else print throws, unwinds, terminations, phases, trips, breaks
}
