#compdef roskubel
# zsh completion for roskubel(8): its words and forms, their options, and image files.
_roskubel() {
  local -a words_of
  words_of=(
    'help:what a word does, or what a refusal means'
    'plan:what drives of these sizes offer'
    'new:make a pool with care'
    'check:how a pool stands, with nothing written'
    'replace:take a new drive in, and rebuild it'
    'grow:add a drive'
    'resync:make the rows agree that a stop left'
    'resume:go on with a change that was interrupted'
    'share:the volume as a Network Block Device'
    'layout:the layers of drives'
    'create:make a pool of zeros'
    'serve:answer a script'
    'import:write a file to the volume'
    'export:give the volume out'
    'status:how a pool stands'
    'examine:what metadata an image has'
    'trial:a generated workload'
  )
  if (( CURRENT == 2 )); then
    _describe 'word' words_of
    return
  fi
  case $words[2] in
    layout) ;;
    help) _describe 'word' words_of ;;
    plan) _arguments '*:image or size:_files' '--add[a drive of this size is added]:size' '--extent[sectors of an extent]:extent' \
      '--replace[a drive takes a place]:place' '--svg[draw the layers]:file:_files' ;;
    new) _arguments '*:image:_files' '--extent[sectors of an extent]:extent' '--yes[write over what they hold]' ;;
    check) _arguments '*:image:_files' '--json[for programs]' ;;
    create) _arguments '*:image:_files' '--yes[write over what they hold]' ;;
    *) _arguments '*:image:_files' '--degraded[a drive is left out]' '--accept-stale[go on with old bytes]' '--yes[write over what it holds]' ;;
  esac
}
_roskubel "$@"
