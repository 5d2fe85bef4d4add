# Completion of pfreplay for OpenBSD's ksh, which its port oksh is too: read this file in ~/.kshrc.
#
# Other shells may read it and are left as they are: ksh93, mksh, dash and FreeBSD's sh complete names of files alone,
# and bash and zsh have files of their own beside this one.
case ${KSH_VERSION-} in
    *'PD KSH'*)
        set -A complete_pfreplay_1 -- run check adapt standby states rules diff show report help --help --version
        ;;
esac
