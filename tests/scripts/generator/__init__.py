"""The generator: rounds of steps and scenarios, each module those of one subject.

`rounds` is the row of rounds with the weights of the steps, `script` the lines that they write,
`guess` what the script has probably reached, `moves` what all subjects use.
"""
