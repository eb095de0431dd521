/*
 * Reads 512-byte miniSEED records from a file with libmseed and prints, for each, its sequence number, quality letter,
 * station, start time, rate and samples. Ends with status 1 at the first record that libmseed does not take.
 */
#include <inttypes.h>
#include <stdio.h>
#include <libmseed.h>

enum { RECORD = 512 };

static void print_record(const MSRecord *record)
{
  char start[64];

  ms_hptime2isotimestr(record->starttime, start, 1);
  printf("%06d %c %s %s %.3f Hz %" PRId64 " samples:", (int)record->sequence_number, record->dataquality,
         record->station, start, record->samprate, (int64_t)record->numsamples);
  for (int64_t i = 0; i < record->numsamples; i++)
    printf(" %" PRId32, ((const int32_t *)record->datasamples)[i]);
  printf("\n");
}

int main(int argc, char **argv)
{
  char bytes[RECORD];
  MSRecord *record = NULL;
  FILE *file = argc == 2 ? fopen(argv[1], "rb") : NULL;
  size_t got;
  int status = 0;

  if (!file) {
    fprintf(stderr, "usage: read_records FILE\n");
    return 2;
  }
  while (status == 0 && (got = fread(bytes, 1, RECORD, file)) > 0) {
    if (got != RECORD || msr_parse(bytes, RECORD, &record, RECORD, 1, 0) != MS_NOERROR || record->sampletype != 'i') {
      fprintf(stderr, "read_records: libmseed does not take a record of %s\n", argv[1]);
      status = 1;
    } else {
      print_record(record);
    }
  }
  msr_free(&record);
  fclose(file);
  return status;
}
