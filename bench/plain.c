#include <stdint.h>
#include <stdio.h>
#include <stdlib.h>
/* A frame by the latest memory as a plain loop, to compare the proved step with. Arguments: the plan's seven numbers.
   Prints the first tick in which a dot is missing or -1, the dots arrived and the dots taken. */
int main(int argc, char **argv) {
    uint32_t w=atoi(argv[1]),h=atoi(argv[2]),hb=atoi(argv[3]),vb=atoi(argv[4]),cap=atoi(argv[5]),burst=atoi(argv[6]),lat=atoi(argv[7]);
    uint32_t end=vb+h*(hb+w),total=w*h,taken=0,x=0,due=vb+hb,req=0,arr=0,waited=0; int pending=0; long first=-1;
    for (uint32_t t=0;t<end;t++){
        if(pending){ if(waited+1>=lat){arr=req;pending=0;waited=0;} else waited++; }
        if(t==due){ if(arr<=taken){first=t;break;} taken++; x++; due++; if(x==w){x=0;due+=hb;} }
        if(!pending&&req<total){ uint32_t n=req+burst<total?req+burst:total; if(n<=taken+cap){req=n;pending=1;waited=0;} }
    }
    printf("%ld %u %u\n",first,arr,taken); return 0; }
