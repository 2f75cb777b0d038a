# Completion of vault(1) for fish. The program itself says what may follow, by python3-argcomplete; without that, files are offered.
function __fish_vault_complete
    set -lx _ARGCOMPLETE 1
    set -lx _ARGCOMPLETE_DFS \t
    set -lx _ARGCOMPLETE_IFS \n
    set -lx _ARGCOMPLETE_SUPPRESS_SPACE 1
    set -lx _ARGCOMPLETE_SHELL fish
    set -lx COMP_LINE (commandline -cp)
    set -lx COMP_POINT (string length -- "$COMP_LINE")
    set -lx COMP_TYPE 9
    vault 8>&1 9>/dev/null >/dev/null 2>&1 </dev/null
    or __fish_complete_path (commandline -ct)
end
complete -c vault -f -a '(__fish_vault_complete)'
