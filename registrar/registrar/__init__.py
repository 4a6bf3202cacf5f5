"""The registrar's tools of Course Match.

They decide nothing of the market. They prepare the files that the program reads, call the program, and retell its answers.
`scripts/registrar COMMAND ..` calls `registrar.command.main`.
"""
