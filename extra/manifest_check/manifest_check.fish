# Completions of manifest_check for fish. scripts/install puts them into share/fish/vendor_completions.d.

function __manifest_check_codes
    manifest_check --list 2>/dev/null | string replace -r ': ' \t
end

set -l no_command 'not __fish_seen_subcommand_from show canon lsp help'
set -l in_show '__fish_seen_subcommand_from show'
set -l in_canon '__fish_seen_subcommand_from canon'

complete -c manifest_check -n __fish_use_subcommand -a show -d 'Show what a package builds, and what it inherits'
complete -c manifest_check -n __fish_use_subcommand -a canon -d 'Report which manifests are not canonical'
complete -c manifest_check -n __fish_use_subcommand -a lsp -d 'Serve an editor by the Language Server Protocol'
complete -c manifest_check -n __fish_use_subcommand -a help -d 'Print help'
complete -c manifest_check -s h -l help -d 'Print help'
complete -c manifest_check -s V -l version -n $no_command -d 'Print version'
complete -c manifest_check -l stdin-path -r -F -n $no_command -d 'The path that standard input is taken to have'
complete -c manifest_check -l no-workspace -n $no_command -d 'Look for no root of a workspace'
complete -c manifest_check -l no-config -n $no_command -d 'Read no .cargo/config.toml'
complete -c manifest_check -l config -r -F -n $no_command -d 'Read this configuration, and none above'
complete -c manifest_check -l publish -n $no_command -d 'Say what a registry wants too'
complete -c manifest_check -l max-size -x -n $no_command -d 'Read no file of more bytes'
complete -c manifest_check -l format -x -n $no_command -a 'people short json github sarif' -d 'How diagnostics are written'
complete -c manifest_check -l format -x -n $in_show -a 'people json html' -d 'How it is written'
complete -c manifest_check -l color -x -n $no_command -a 'auto always never' -d 'When colours are used'
complete -c manifest_check -l width -x -n $no_command -d 'How wide an excerpt may be'
complete -c manifest_check -l deny -x -n $no_command -a 'all (__manifest_check_codes)' -d 'Take a code for an error'
complete -c manifest_check -l warn -x -n $no_command -a 'all (__manifest_check_codes)' -d 'Take a code for a warning'
complete -c manifest_check -l allow -x -n $no_command -a 'all (__manifest_check_codes)' -d 'Do not report a code'
complete -c manifest_check -l fix -n $no_command -d 'Make the suggestions that are certain'
complete -c manifest_check -l dry-run -n $no_command -d 'Show what --fix would change'
complete -c manifest_check -l explain -x -n $no_command -a '(__manifest_check_codes)' -d 'Print the page of a code'
complete -c manifest_check -l list -n $no_command -d 'Print all codes with their levels'
complete -c manifest_check -l check -n $in_canon -d 'Change nothing'
