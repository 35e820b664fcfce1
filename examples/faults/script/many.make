# 65 sources, two lines each
for number in $(seq 65); do
  printf 'source s%d inline\nend\n' "$number"
done
