# What README shows of the program, run again command by command. Blank lines are passed over.
# shellcheck shell=bash disable=SC2154

cd "$work" || exit
mkdir readme
cd readme || exit
sed -n '/^## The program$/,/^## Refusals$/s/^    //p' "$root/README.md" | grep . >"$work/shown"
while read -r line; do
    echo "$line"
    eval "${line#\$ }" 2>&1 || true
done < <(grep '^\$ ' "$work/shown") | grep . >"$work/said"
[ "$(grep -c '^\$ volumes' "$work/shown")" -ge 5 ] || failed 'README shows no commands of the program'
same 'README' "$work/shown" "$work/said"
