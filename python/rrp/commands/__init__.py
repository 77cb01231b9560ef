"""The subcommands of `rrp`, a module each."""
