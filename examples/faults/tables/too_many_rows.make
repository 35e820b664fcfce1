# one vertex more than a graph may have
echo "source s inline"
seq -f 'v %.0f' 1048577
echo "end"
