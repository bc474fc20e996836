import switchbr

SCENARIO = """scenario 1
port 1 p1 chip 1
port 2 p2 chip 1
cmd port up p1
cmd port up p2
rx 1 02000000000b02000000000a88b50102
end
"""

told = switchbr.replay(SCENARIO)
print(told, end="")
assert switchbr.check(SCENARIO, told) is None
