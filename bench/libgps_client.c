/* A client of libgps, to see what the C library makes of a daemon's lines.
 *
 * cc -o libgps_client libgps_client.c -lgps -lm; ./libgps_client HOST PORT [READS]
 *
 * It watches in JSON with pulses, reads READS times (12 by default), and prints what each read changed. A TOFF and a PPS are both
 * printed from `pps`: libgps 3.22 lays the numbers of a TOFF there too. */
#include <gps.h>
#include <stdio.h>
#include <stdlib.h>

int main(int argc, char **argv)
{
    struct gps_data_t data;
    int status, reads = argc > 3 ? atoi(argv[3]) : 12;

    if (argc < 3 || (status = gps_open(argv[1], argv[2], &data)) != 0) {
        fprintf(stderr, argc < 3 ? "usage: libgps_client HOST PORT [READS]\n" : "no daemon there\n");
        return 1;
    }
    gps_stream(&data, WATCH_ENABLE | WATCH_JSON | WATCH_PPS, NULL);
    for (int n = 0; n < reads; n++) {
        if (!gps_waiting(&data, 5000000) || gps_read(&data, NULL, 0) == -1) {
            printf("nothing\n");
            break;
        }
        if (data.set & VERSION_SET)
            printf("version %s, protocol %d.%d\n", data.version.release, data.version.proto_major, data.version.proto_minor);
        else if (data.set & TOFF_SET)
            printf("toff %lld at %lld\n", (long long)data.pps.real.tv_sec, (long long)data.pps.clock.tv_sec);
        else if (data.set & PPS_SET)
            printf("pps %lld at %lld\n", (long long)data.pps.real.tv_sec, (long long)data.pps.clock.tv_sec);
        else if (data.set & SATELLITE_SET)
            printf("sky: %d seen, %d used, hdop %.2f\n", data.satellites_visible, data.satellites_used, data.dop.hdop);
        else if (data.set & MODE_SET)
            printf("fix: mode %d, time %lld.%03ld, %.9f %.9f, height %.3f over the ellipsoid, %.3f over the sea, speed %.3f, track %.4f, climb %.3f\n",
                   data.fix.mode, (long long)data.fix.time.tv_sec, data.fix.time.tv_nsec / 1000000, data.fix.latitude, data.fix.longitude,
                   data.fix.altHAE, data.fix.altMSL, data.fix.speed, data.fix.track, data.fix.climb);
        else if (data.set & DEVICELIST_SET)
            printf("devices: %d, the first %s\n", data.devices.ndevices, data.devices.list[0].path);
    }
    gps_stream(&data, WATCH_DISABLE, NULL);
    gps_close(&data);
    return 0;
}
