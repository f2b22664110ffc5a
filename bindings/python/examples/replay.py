# replay.py fio|msr|blkparse LOG: plays a log of any length, and prints the counts after each 10,000 requests and at the end
import sys
import mintlintel
sys.path.insert(0, "tools")
from simulation import blkparse, fio, msr
from simulation.lines import numbered_lines

readers = {"fio": fio.requests, "msr": msr.requests, "blkparse": lambda lines: blkparse.requests(lines, b"D")}
device = mintlintel.Device(blocks=64, pages=64, words=512, sectors=3500, endurance=1_000_000)
with device, open(sys.argv[2], "rb") as log:
    number, requests = 0, readers[sys.argv[1]](numbered_lines(log))
    for number, request in enumerate(mintlintel.replay(device, requests, wrap=True), 1):
        if number % 10_000 == 0:
            print(number, *device.counts())
    print(number, *device.counts())
