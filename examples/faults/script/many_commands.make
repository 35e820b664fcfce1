# 65,537 commands behind two lines
printf 'phase\nactor a\n'
yes columns | head -n 65537
