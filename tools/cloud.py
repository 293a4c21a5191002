#!/usr/bin/env python3
"""A cloud radar's base data file, after source document 002 (tables 3-2-17 to 3-2-28): the magic of a
volume, but a site block of 72 bytes, a radar block of 152, and other fields in every block after them.

    python3 tools/cloud.py > samples/cloud.vol

Document 01 does not follow these files, so a reader of volumes has to refuse them. Where it does depends
on the station: the heights stand where a volume has latitude and longitude.
"""
import struct
import sys

# (name, struct format) in the tables' order: h SHORT, H USHORT, i INT, I UINT, Q ULONG, f FLOAT, B CHAR,
# Ns = N bytes of text or reserved.
FIELDS = {
    'generic': [                                        # table 3-2-17
        ('magic', 'i'), ('major', 'h'), ('minor', 'h'), ('generic type', 'i'), ('reserved', '20s')],
    'site': [                                           # table 3-2-18
        ('code', '8s'), ('name', '24s'), ('latitude', 'f'), ('longitude', 'f'), ('antenna height', 'f'),
        ('ground height', 'f'), ('amend north', 'f'), ('RDA version', 'h'), ('radar type', 'h'),
        ('manufacturers', '6s'), ('reserved', '10s')],
    'radar': [                                          # table 3-2-19
        ('frequency', 'f'), ('wavelength', 'f'), ('beam width H', 'f'), ('beam width V', 'f'),
        ('peak power', 'f'), ('antenna gain', 'f'), ('total loss', 'f'), ('receiver gain', 'f'),
        ('first side', 'f'), ('dynamic range', 'f'), ('sensitivity', 'f'), ('band width', 'f'),
        ('maximum range', 'I'), ('distance resolution', 'H'), ('polarization type', 'H'),
        ('reserved', '96s')],
    'task': [                                           # table 3-2-20
        ('name', '16s'), ('description', '96s'), ('polarization', 'h'), ('scan type', 'h'),
        *[(f'pulse width {k}', 'i') for k in range(1, 5)], ('start time', 'Q'), ('cut number', 'i'),
        ('noise H', 'f'), ('noise V', 'f'), *[(f'calibration H {k}', 'f') for k in range(1, 5)],
        *[(f'calibration V {k}', 'f') for k in range(1, 5)], ('noise temperature H', 'f'),
        ('noise temperature V', 'f'), ('ZDR', 'f'), ('phase', 'f'), ('LDR', 'f'),
        *[(f'coherent accumulation {k}', 'B') for k in range(1, 5)],
        *[(f'FFT count {k}', 'H') for k in range(1, 5)],
        *[(f'spectrum accumulation {k}', 'B') for k in range(1, 5)],
        *[(f'pulse start {k}', 'I') for k in range(1, 5)], ('reserved', '20s')],
    'cut': [                                            # table 3-2-21
        ('process mode', 'h'), ('wave form', 'h'), *[(f'PRF {k}', 'f') for k in range(1, 5)],
        ('PRF mode', 'h'), ('pulse combination', 'h'), ('azimuth', 'f'), ('elevation', 'f'),
        ('start angle', 'f'), ('end angle', 'f'), ('angular resolution', 'f'), ('scan speed', 'f'),
        ('log resolution', 'i'), ('Doppler resolution', 'i'), ('start range', 'i'), ('phase mode', 'i'),
        ('atmospheric loss', 'f'), ('Nyquist speed', 'f'), ('filter mask', 'i'),
        *[(f'{name} threshold', 'f') for name in ('SQI', 'SIG', 'CSR', 'LOG', 'CPA', 'PMI', 'DPLOG')],
        ('thresholds reserved', '12s'), ('dBT mask', 'i'), ('dBZ mask', 'i'), ('velocity mask', 'i'),
        ('spectrum width mask', 'i'), ('DP mask', 'i'), ('mask reserved', '12s'), ('scan sync', 'i'),
        ('direction', 'i'), ('clutter classifier', 'h'), ('clutter filter', 'h'),
        ('clutter notch width', 'h'), ('clutter window', 'h'), ('reserved', '92s')],
    'radial': [                                         # table 3-2-26
        ('state', 'h'), ('spot blank', 'h'), ('sequence', 'H'), ('radial number', 'H'),
        ('moment number', 'H'), ('elevation number', 'H'), ('azimuth', 'f'), ('elevation', 'f'),
        ('seconds', 'Q'), ('microseconds', 'I'), ('length of data', 'I'), ('duration', 'H'),
        ('maximum FFT count', 'H'), ('reserved', '24s')],
    'moment': [                                         # table 3-2-27
        ('type', 'H'), ('scale', 'H'), ('offset', 'H'), ('bin bytes', 'H'), ('bin number', 'H'),
        ('flags', 'h'), ('length', 'i'), ('reserved', '16s')],
}
SIZES = {'generic': 32, 'site': 72, 'radar': 152, 'task': 256, 'cut': 256, 'radial': 64, 'moment': 32}

for _kind, _fields in FIELDS.items():                   # the tables fill their blocks
    assert struct.calcsize('<' + ''.join(fmt for _, fmt in _fields)) == SIZES[_kind], _kind


def block(kind, **given):
    """A block's bytes; what is not given holds zeros."""
    given = {name.replace('_', ' '): value for name, value in given.items()}
    zero = {name: b'' if fmt.endswith('s') else 0 for name, fmt in FIELDS[kind]}
    assert given.keys() <= zero.keys(), given.keys() - zero.keys()
    return struct.pack('<' + ''.join(fmt for _, fmt in FIELDS[kind]), *{**zero, **given}.values())


def radial(state, sequence):
    """Four gates of reflectivity, velocity, spectrum width and signal to noise, two bytes each."""
    moments = b''
    for t in 1, 2, 3, 4:
        codes = [32002 + 100 * t + 10 * sequence + gate for gate in range(4)]
        moments += block('moment', type=t, scale=100, offset=32002, bin_bytes=2, bin_number=4, length=8)
        moments += struct.pack('<4H', *codes)
    return block('radial', state=state, sequence=sequence, radial_number=sequence, moment_number=4,
                 elevation_number=1, elevation=90.0, seconds=1561939200 + sequence,
                 length_of_data=len(moments), duration=1, maximum_FFT_count=256) + moments


def cloud(generic_type=1, antenna_height=59.5, ground_height=54.5):
    """A Ka band radar that looks straight up: scan type 7, one cut, two radials."""
    return b''.join([
        block('generic', magic=0x4D545352, major=1, generic_type=generic_type),
        block('site', code=b'Z9010', name=b'BeiJing', latitude=39.8, longitude=116.47,
              antenna_height=antenna_height, ground_height=ground_height, RDA_version=1, radar_type=66,
              manufacturers=b'A'),
        block('radar', frequency=35000.0, wavelength=0.00857, beam_width_H=0.3, beam_width_V=0.3,
              peak_power=43.0, antenna_gain=54.0, total_loss=3.0, receiver_gain=40.0, first_side=-20.0,
              dynamic_range=70.0, sensitivity=-103.0, band_width=4.0, maximum_range=15000,
              distance_resolution=30, polarization_type=2),
        block('task', name=b'THI10', description=b'straight up, one pulse width', polarization=1,
              scan_type=7, pulse_width_1=200, start_time=1561939200, cut_number=1, noise_H=-75.0,
              noise_V=-75.0, calibration_H_1=60.0, calibration_V_1=60.0, noise_temperature_H=290.0,
              noise_temperature_V=290.0, coherent_accumulation_1=4, FFT_count_1=256,
              spectrum_accumulation_1=16),
        block('cut', process_mode=2, wave_form=7, PRF_1=8000.0, PRF_mode=1, elevation=90.0,
              log_resolution=30, Doppler_resolution=30, start_range=150, phase_mode=1,
              atmospheric_loss=0.2, Nyquist_speed=4.28, SQI_threshold=0.4, LOG_threshold=3.0,
              direction=1, clutter_classifier=1),
        radial(3, 1), radial(4, 2)])


if __name__ == '__main__':
    sys.stdout.buffer.write(cloud())
