# Tests of flux_floor --dot: the graph as text, and what Graphviz makes of it where that is installed. Part of
# host/test.sh; the helpers are in host/test/floor.sh.

command -v dot >/dev/null || echo 'no dot here: the graphs of flux_floor are compared as text alone'

# The words with --dot have this status and print a graph alone, which dot takes; $room/plain is what dot says of it.
graphs() { # LABEL STATUS WORDS...
    local label=$1 want=$2
    shift 2
    floor "$@" --dot
    [ "$status" -eq "$want" ] && [ "$(head -n 1 "$room/out")" = 'digraph floor {' ] && [ "$(tail -n 1 "$room/out")" = '}' ] &&
        [ ! -s "$room/err" ] && ! LC_ALL=C grep -q '[^ -~]' "$room/out"
    report $? "$label"
    command -v dot >/dev/null || return
    dot -Tplain "$room/out" >"$room/plain" 2>"$room/err" && [ ! -s "$room/err" ] && dot -Tsvg "$room/out" >"$room/svg" 2>"$room/err"
    report $? "$label, by dot"
}

# The graph has this line.
has_line() { # LINE
    grep -qxF -- "  $1" "$room/out"
    report $? "has the line $1"
}

# What dot has made of it, as SVG, has this text.
draws() { # TEXT
    command -v dot >/dev/null || return
    grep -qF -- "$1" "$room/svg"
    report $? "draws $1"
}

graphs 'show' 0 show "$example"
[ "$(cat "$room/out")" = 'digraph floor {
  graph [labelloc=t, label="'"$example"'"];
  node [shape=box];
  0 [label="rank 0\nlog"];
  1 [label="rank 1\nbench"];
  2 [label="rank 2"];
  3 [label="rank 3"];
  4 [label="rank 4\nbench"];
  5 [label="rank 5"];
  6 [label="rank 6"];
  0 -> 1 [dir=none];
  0 -> 2 [dir=none];
  1 -> 3 [dir=none];
  1 -> 4 [dir=none];
  2 -> 5 [dir=none];
  2 -> 6 [dir=none];
}' ]
report $? 'show, to the byte'
graphs 'show of 64 ranks' 0 show "$room/64.floor"
[ "$(grep -c 'dir=none' "$room/out")" -eq 63 ]
report $? 'each rank but 0 has its link'

graphs 'delivered' 0 walk --enter 3 "$example" --topic bench
has_line 'graph [labelloc=t, label="delivered at rank 1, links 1: 3 > 1"];'
has_line '1 [label="rank 1\nbench\nstep 2\ndelivered", shape=doubleoctagon, style=filled, fillcolor=palegreen];'
has_line '3 [label="rank 3\nstep 1", style="filled,bold", fillcolor=lightblue];'
has_line '3 -> 1 [label="1", constraint=false, color=blue, penwidth=2];'
has_line '5 [label="rank 5"];'
draws '>delivered<'
graphs 'an error' 4 walk --enter 5 "$example" --topic bench
has_line '0 [label="rank 0\nlog\nstep 3\nerror reply", shape=octagon, style=filled, fillcolor=tomato];'
graphs 'silenced' 5 walk --enter 0 "$example" --topic bench --noresponse
has_line '0 [label="rank 0\nlog\nstep 1\nsilenced", shape=note, style=filled, fillcolor=lightgrey];'
graphs 'refused' 1 walk --enter 0 "$example" --type event --topic bench
has_line '0 [label="rank 0\nlog\nstep 1\nrefused", shape=diamond, style=filled, fillcolor=tomato];'
graphs 'refused where no broker is' 1 walk --enter 9 "$example" --topic bench
graphs 'home' 0 home --from 3 "$example" --topic x
has_line '3 [label="rank 3\nstep 1\nhome", shape=doubleoctagon, style=filled, fillcolor=palegreen];'
graphs 'home with an error' 4 home --from 3 "$example" --topic x --errnum 5
has_line '3 [label="rank 3\nstep 1\nhome", shape=octagon, style=filled, fillcolor=tomato];'
graphs 'a trip' 4 trip --enter 3 "$example" --topic bench --answer-errnum 5
has_line '1 [label="rank 1\nbench\nstep 2\nback 1\ndelivered", shape=doubleoctagon, style=filled, fillcolor=palegreen];'
has_line '3 [label="rank 3\nstep 1\nback 2\nhome", shape=octagon, style=filled, fillcolor=tomato];'
has_line '1 -> 3 [label="back 1", constraint=false, color=purple, penwidth=2, style=dashed];'
"$FLUX_FRAME" write --type response --topic log --matchtag 3 -o "$room/answer"
graphs 'a mismatch' 4 trip --enter 0 "$example" --topic log --answer "$room/answer"
has_line '0 [label="rank 0\nlog\nstep 1\nback 1\ndelivered\nhome\nmismatch", shape=octagon, style=filled, fillcolor=tomato];'
floor trip --enter 0 "$example" --topic log --dot
[ "$status" -eq 2 ] && [ -s "$room/err" ]
report $? 'no answer'
has_line '0 [label="rank 0\nlog\nstep 1\ndelivered\nunanswered", shape=diamond, style=filled, fillcolor=khaki];'

# Names that Graphviz would read as its own: quotes, backslashes, escapes, entities, tags and bytes that are no text.
printf '0 none 00000000%s "];x \\N\\" &lt; <b> a\xFFb \\\n' "$identity" >"$room/floor"
floor show "$room/floor" --dot
[ "$status" -eq 0 ] && ! LC_ALL=C grep -q '[^ -~]' "$room/out"
report $? 'names that Graphviz would read as its own'
has_line '0 [label="rank 0\n\"];x \\N\\\" &amp;lt; <b> a\\xFFb \\"];'
if command -v dot >/dev/null; then
    dot -Tsvg "$room/out" >"$room/svg" 2>"$room/err"
    report $? 'dot takes them'
    draws '>&quot;];x \N\&quot; &amp;lt; &lt;b&gt; a\xFFb \<'
fi
sed "s/^6 .*/& $many/" "$example" >"$room/floor"
graphs 'many services' 0 show "$room/floor"
has_line '6 [label="rank 6\nservice-01 service-02 service-03\nservice-04 service-05 service-06\nservice-07 service-08 service-09\nservice-10 service-11 service-12\nservice-13 service-14 service-15\nservice-16 service-17 service-18\nservice-19 service-20 service-21\nservice-22 service-23 service-24\nservice-25 service-26 service-27\nservice-28 service-29 service-30"];'
