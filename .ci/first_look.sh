# README's first look, in a copy of the crates: what `rt try` builds without proof prints the stored text. Read by .ci/run, which has `same` and $root.

mkdir look
tar -C "$root" --exclude=out -cf - crates crates.txt HANDLES | tar -C look -xf -
began=$SECONDS
given=$(cd look/crates/ncrun && rt try -- d.nc < stdin 2> ../../../look.said)
same 'a first look ends well' 0 $?
case $given in
    *"$(cat "$root/crates/ncrun/stdout")"*) same 'the text of a first look' yes yes ;;
    *) same 'the text of a first look' "$(cat "$root/crates/ncrun/stdout")" "$given" ;;
esac
printf 'a first look took %s seconds\n' $((SECONDS - began))
rm -rf look look.said
