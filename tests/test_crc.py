"""Document 02, Q-3: nobody notices how many bits of the CRC go at a time. The programs against the CRC by its public parameters, read the other way round: the polynomial as it is printed, the highest bit first, all reflected at the end. `crc` of all inputs of up to two bytes, of random ones of each length up to 100 and of a few long ones: whole turns of four bytes with every number of bytes behind them. `stream`, whose Encoder takes a byte at a time, and `push` of that frame, whose decoder goes on from a register that it kept: of random payloads with many 1b. --all draws a hundred times as many."""
import os, random, subprocess, sys

os.chdir(os.path.join(os.path.dirname(os.path.abspath(__file__)), ".."))
WIDTH, POLY, INIT, XOR_OUT, CHECK = 16, 0x1021, 0xFFFF, 0xFFFF, 0x906E
SEED, EACH = 16, 4000 if sys.argv[1:] == ["--all"] else 40
bad = []


def crc(data):
    register = INIT
    for byte in data:
        for k in range(8):
            top = register >> (WIDTH - 1) ^ byte >> k & 1
            register = (register << 1) % 2**WIDTH ^ (POLY if top else 0)
    return int(format(register, f"0{WIDTH}b")[::-1], 2) ^ XOR_OUT


def replayed(commands):
    p = subprocess.run(["bin/replay"], input="".join(c + "\n" for c in commands), capture_output=True, text=True)
    answers = p.stdout.split("\n")[:-1]
    if p.returncode or len(answers) != len(commands):
        sys.exit(f"bin/replay: status {p.returncode}, {len(answers)} answers to {len(commands)} commands\n{p.stderr}")
    return answers


def held(command, said, wanted):
    if said != wanted:
        bad.append(f"{command}: {said}, and by the parameters {wanted}")


draw = random.Random(SEED)
inputs = [b""] + [bytes([a]) for a in range(256)] + [bytes([a, b]) for a in range(256) for b in range(256)]
inputs += [draw.randbytes(n) for n in range(3, 101) for _ in range(EACH)]
inputs += [bytes([draw.choice((0x00, 0x1B, 0xFF))]) * n for n in range(3, 101)]
inputs += [draw.randbytes(draw.randrange(1000, 5000)) for _ in range(EACH // 4)]
held("the second reading of 123456789", crc(b"123456789"), CHECK)
for data, said in zip(inputs, replayed([f"crc {data.hex() or '-'}" for data in inputs])):
    held(f"crc {data.hex()}", said, f"{crc(data):04x}")

payloads = [bytes(draw.choice((0x1B, 0x1B, 0x1B, draw.randrange(256))) for _ in range(n)) for n in range(1, 61) for _ in range(EACH // 4)]
frames = [bytes.fromhex(said.split(" ")[0]) for said in replayed([f"stream {p.hex()}" for p in payloads])]
for payload, frame in zip(payloads, frames):
    held(f"stream {payload.hex()}", frame[-2:].hex(), crc(frame[:-2]).to_bytes(2, "little").hex())
pushes = [f"push 4096 b{frame.hex()}" for frame in frames]
for command, payload, frame, said in zip(pushes, payloads, frames, replayed(pushes)):
    held(command, said, f"{len(frame)}:payload {payload.hex()}")
print("\n".join(bad[:20]))
print(f"{len(inputs)} inputs of crc, {len(payloads)} frames, {len(bad)} faults")
sys.exit(1 if bad else 0)
