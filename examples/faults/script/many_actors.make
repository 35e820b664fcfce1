# 129 actors behind a line
echo phase
for number in $(seq 129); do
  echo "actor n$number"
done
