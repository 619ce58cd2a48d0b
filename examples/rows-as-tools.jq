# Makes of rows as `orcm rows` prints them the form that `orc-tools data` is known to print: a map is an array of objects with the
# keys _key and _value, bytes are an array of numbers. The schema is a text of `orcm show`, with names of letters, digits and _:
#   jq -c --arg schema 'struct<m:map<string,binary>>' -f rows-as-tools.jq ROWS
# jq 1.6 rounds integers above 2^53.

# the type at a place among the words of a schema, as {type, at}: what stands there, and where the next word is
def type_at($words; $at):
  if $words[$at + 1] != "<" then {type: {kind: $words[$at]}, at: ($at + 1)}
  else
    {parts: [], names: [], at: ($at + 2)}
    | until($words[.at - 1] == ">" or $words[.at] == ">";
        (if $words[$at] == "struct" then .names += [$words[.at]] | .at += 2 else . end)
        | . as $so_far
        | type_at($words; .at) as $part
        | $so_far | .parts += [$part.type] | .at = $part.at + 1)
    | {type: {kind: $words[$at], parts: .parts, names: .names}, at: (if $words[.at - 1] == ">" then .at else .at + 1 end)}
  end;

# the number that two hexadecimal digits are
def byte: explode | map(if . < 58 then . - 48 else . - 87 end) | .[0] * 16 + .[1];

# a value of a type in the other form
def value($type):
  if . == null then null
  elif $type.kind == "binary" then [range(0; length; 2) as $at | .[$at:$at + 2] | byte]
  elif $type.kind == "array" then map(value($type.parts[0]))
  elif $type.kind == "map" then map({_key: .[0] | value($type.parts[0]), _value: .[1] | value($type.parts[1])})
  elif $type.kind == "struct" then
    . as $row | reduce range(0; $type.names | length) as $at ({}; .[$type.names[$at]] = ($row[$type.names[$at]] | value($type.parts[$at])))
  else . end;

([$schema | scan("[A-Za-z0-9_]+|[<>,:]")] | type_at(.; 0).type) as $type | value($type)
