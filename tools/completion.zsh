#compdef pdscript
# Completion of pdscript for zsh: scripts and options, then the names that the script reads, and paths behind NAME=.
local -i first=2
while [[ $words[first] == --(stats|keep-going) ]] && (( CURRENT > first )); do first+=1; done
if (( CURRENT == first )); then
    _files -g '*.pds'
    compadd -- --help --demo --stats --keep-going
elif compset -P '*='; then
    _files
else
    local -a names
    names=(${(f)"$(sed -n "s/.*read_csv(\(name=\)\{0,1\}[\"']\([^\"']*\)[\"'].*/\2/p" "$words[first]" 2>/dev/null | sort -u)"})
    names=(${names:#(${(j:|:)~${words[first + 1,-1]%%=*}})})
    compadd -S = -q -a names
fi
