# Filters over the view of a plan. They take the lines of JSON as one list:
#   baliseplan --json < INPUT | sed -n '/^{/p' | jq -L examples -rs 'include "line"; links'

# C.N of a group.
def identity: "\(.country).\(.number)";

# The identities of all groups, in the order of the plan.
def identities: .[] | identity;

# Each variable on a line of its own, in the words of `set` and, in a header, of `seth`.
def fields:
  .[] | identity as $group
  | .telegrams | to_entries[] | "\($group) \(.key) " as $telegram | .value
  | ($telegram + (("M_VERSION", "M_DUP", "M_MCOUNT", "Q_LINK") as $name | "\($name) \(.[$name | ascii_downcase])")),
    (.packets | to_entries[] | "\($telegram)\(.key) " as $packet | .value.fields
      | foreach .[] as [$name, $value] ({}; setpath([$name]; (.[$name] // -1) + 1);
          $packet + $name + " \(.[$name]) \($value)"));

# The packets that the program doesn't know, each with its place and its number. Some of the standard's have numbers of
# groups in them, which no edit follows.
def unknown:
  .[] | identity as $group
  | .telegrams | to_entries[] | .key as $pig
  | .value.packets | to_entries[] | select(.value.known | not)
  | "\($group) \($pig) \(.key) \(.value.fields[0][1])";

# The packets that name groups, each with its place.
def naming:
  .[] | identity as $from | .country as $country
  | .telegrams | to_entries[] | .key as $pig
  | .value.packets | to_entries[] | select(.value.fields[0][1] == (5, 136))
  | {from: $from, pig: $pig, pkt: .key, country: $country, fields: .value.fields};

# The groups that a packet names, as C.N. A link without NID_C has the country of the link before it, the first one the
# group's. NID_BG 16383 names nothing.
def targets:
  foreach (.fields[] | select(.[0] == "NID_C" or .[0] == "NID_BG")) as [$name, $value] (.country;
    if $name == "NID_C" then $value else . end;
    if $name == "NID_BG" and $value != 16383 then "\(.).\($value)" else empty end);

# The links of a packet, as objects. D_LINK counts from the link before, so the distance from the group is a sum.
# Q_SCALE 3 has no unit, and packet 136 has no Q_SCALE and no distance.
def links_of($here):
  {from, pig, pkt} as $place | .fields[1][1] as $dir
  | ((.fields[3] | select(.[0] == "Q_SCALE") | .[1]) // null) as $scale
  | foreach (.fields[], ["", 0]) as [$name, $value] ({c: .country, sum: 0, k: -1};
      if $name == "D_LINK" then . + {sum: (.sum + $value)}
      elif $name == "NID_C" then . + {c: $value}
      elif $name == "NID_BG" then . + {k: (.k + 1), number: $value, to: "\(.c).\($value)"}
      elif $name == "Q_LINKORIENTATION" then . + {nominal: ($value == 1)}
      else . end;
      # The orientation comes after NID_BG, and packet 136 ends with that.
      select($name == "Q_LINKORIENTATION" or ($name == "" and .nominal == null)))
  | select(.number != 16383)
  | $place + {k, to, nominal, dir: $dir, missing: ($here[.to] | not),
     metres: (if $scale == null then null else [.sum / 10, .sum, .sum * 10][$scale] // "?" end)};

# The identities of all groups, as the keys of an object.
def here: [identities | {(.): true}] | add;

# All links of the plan that name a group. `missing` is true where the plan hasn't the group.
def all_links: here as $here | naming | links_of($here);

def distance: if .metres == null then "infill" else "\(.metres) m \(if .nominal then "nominal" else "reverse" end)" end;
def link_line: "\(.from) \(.pig) \(.pkt) NID_BG \(.k): \(.to) \(distance)";

# Each link on a line of its own: where its NID_BG stands, the group that it names, distance and orientation.
def links: all_links | link_line;

# The links to groups that the plan hasn't. The others are left out before anything is made of them.
def dangling:
  here as $here | naming
  | select([targets | select($here[.] | not)] | length > 0)
  | links_of($here) | select(.missing) | link_line;

# The line as a graph for `dot`: the groups are boxes from left to right, the links arrows. Arrows are black where the
# packet is for trains in the group's nominal direction, blue for reverse, grey for both. Groups that the plan
# hasn't are dashed.
def packets: [.packets[].fields[0][1] | tostring] | join(" ");
def box: "  \"\(identity)\" [label=\"\(identity)\\n\([.telegrams | to_entries[] | "\(.key): \(.value | packets)"]
  | join("\\n"))\"];";
def arrow: "  \"\(.from)\" -> \"\(.to)\" [label=\"\(distance | sub(" m "; " m\\n"))\", color=\(["blue", "black"][.dir]
  // "grey")\(if .missing then ", style=dashed" else "" end)];";
def picture:
  [all_links] as $links
  | "digraph line {",
    "  rankdir=LR; node [shape=box, fontname=Helvetica]; edge [fontname=Helvetica, fontsize=10];",
    (.[] | box),
    ([$links[] | select(.missing).to] | unique[] | "  \"\(.)\" [style=dashed];"),
    ($links[] | arrow),
    "}";
