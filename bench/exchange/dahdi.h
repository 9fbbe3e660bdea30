/* The requests of DAHDI that libopenr2 1.3.3 makes, as Linux numbers them on x86-64. */
#ifndef DAHDI_H
#define DAHDI_H
enum { DESCRIPTORS = 5000 };        /* that of circuit n is DESCRIPTORS + n, and no file has it */
enum { PARAMETERS_SIZE = 136, PARAMETERS_SIGNALLING = 3, SIGNALLING_CAS = 1 << 15, BUFFERS_SIZE = 24 };
enum { IOMUX_READ = 1, IOMUX_WRITE = 2, IOMUX_EVENT = 8 };

#define REQUEST(direction, number, size) _IOC(direction, 0xDA, number, size)
#define FLUSH REQUEST(_IOC_WRITE, 3, sizeof(int))
#define GET_PARAMETERS REQUEST(_IOC_READ | _IOC_WRITE, 5, PARAMETERS_SIZE)
#define GET_EVENT REQUEST(_IOC_READ, 8, sizeof(int))
#define IOMUX REQUEST(_IOC_READ | _IOC_WRITE, 9, sizeof(int))
#define SET_GAINS REQUEST(_IOC_WRITE, 16, 516)
#define GET_BUFFERS REQUEST(_IOC_READ, 27, BUFFERS_SIZE)
#define SET_BUFFERS REQUEST(_IOC_WRITE, 27, BUFFERS_SIZE)
#define SET_ECHO REQUEST(_IOC_WRITE, 33, sizeof(int))
#define GET_NUMBER REQUEST(_IOC_READ, 34, sizeof(int))
#define SET_LAW REQUEST(_IOC_WRITE, 39, sizeof(int))
#define GET_BITS REQUEST(_IOC_READ, 43, sizeof(int))
#define SET_BITS REQUEST(_IOC_WRITE, 43, sizeof(int))
#endif
