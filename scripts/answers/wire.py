"""Packets, fragments, scripts, traces and messages, by the program.

Bytes are hexadecimal, `-` stands for none.

- `crc H`; `write DEST SOURCE KIND ID H`, a packet; `stream H`, the packets in these bytes, which
  come in pieces of 1, 2, 7 and 1,040 bytes, once for each length.
- `shows H`, the packets in these bytes as text; `show ID H`, a packet with this body.
- `arrived DEST KIND ID H`, a packet with this body as an end judges it.
- `script H NUMBER..`: a script of these bytes, and the fates of the frames of these numbers; `many
  COUNT H NUMBER..`: the same of a script of so many lines `N lost`, from 1 on, and these bytes
  behind them; `none NUMBER..`: the same of the empty script.
- `frame NUMBER END MARK H FATE..`: the trace of this frame alone. A fate is `ok`, or one that a
  script has.
- `trace H`: how many frames the trace in these bytes has, or its first bad line; `verdict H`:
  whether it is proper; `page H`: the lines of its page that say something of it.
- What begins with `dlp`: messages (wire_messages.py).
"""
import wire_messages
import wire_packets
import wire_traces


def bytes_of(word):
    return b"" if word == "-" else bytes.fromhex(word)


def answer(line, tools):
    words = line.split(" ")
    data = bytes_of(words[-1]) if words[0] in ONE_TEXT else b""
    match words:
        case ["case", *_]:
            return line
        case ["crc", _]:
            return wire_packets.checksum(tools, data)
        case ["write", *numbers, _]:
            return wire_packets.written(tools, *map(int, numbers), data)
        case ["stream", _]:
            return wire_packets.found(tools, data)
        case ["shows", _]:
            return wire_packets.shown(tools, data)
        case ["show", number, _]:
            text = wire_packets.packet(int(number), data)
            return wire_packets.shown(tools, text).split("\n")[0]
        case ["arrived", *numbers, _]:
            return wire_packets.arrived(tools, *map(int, numbers), data)
        case ["dlp", *asked]:
            return wire_messages.answer(tools, asked)
    return of_traces(words, data, tools)


def of_traces(words, data, tools):
    match words:
        case ["script", text, *numbers]:
            return wire_traces.fates(tools, bytes_of(text), numbers)
        case ["many", count, text, *numbers]:
            return wire_traces.many(tools, int(count), bytes_of(text), numbers)
        case ["none", *numbers]:
            return wire_traces.fates(tools, b"", numbers)
        case ["frame", number, end, mark, text, *fate]:
            return wire_traces.frame(tools, int(number), end, mark, text, fate)
        case ["trace", _]:
            return wire_traces.trace_of(tools, data)
        case ["verdict", _]:
            return wire_traces.verdict(tools, data)
        case ["page", _]:
            return wire_traces.page_of(tools, data)
    return "no such line"


# The words of lines whose last word is bytes.
ONE_TEXT = ("crc", "write", "stream", "shows", "show", "arrived", "trace", "verdict", "page")


def answers(lines, tools):
    return [answer(line, tools) for line in lines]
