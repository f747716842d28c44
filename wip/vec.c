#include "rippleshrug.h"
#include <stdio.h>
#include <stdlib.h>
#include <string.h>
static size_t unhex(const char*s,uint8_t*b){ if(!strcmp(s,"-"))return 0; size_t n=strlen(s)/2; for(size_t i=0;i<n;i++){unsigned x; sscanf(s+2*i,"%2x",&x); b[i]=x;} return n;}
static void tab(uint32_t*t,size_t n){ while(n>0&&t[n-1]==0)n--; for(size_t i=0;i<n;i++)printf(" %u",t[i]); }
int main(void){ static char d[40000],in[40000]; size_t vw,dw; static uint8_t db[20000],ib[20000];
 while(scanf("%39999s %39999s %zu %zu",d,in,&vw,&dw)==4){ size_t dl=unhex(d,db),il=unhex(in,ib); uint32_t*v=malloc(4*vw+4),*e=malloc(4*dw+4); memset(v,0xA5,4*vw); memset(e,0x5A,4*dw);
 struct rippleshrug_answer a=rippleshrug_read(db,dl,ib,il,v,vw,e,dw); printf("%u %u %u %u :",a.refusal,a.node,a.count,a.end); tab(v,vw); printf(" |"); tab(e,dw); printf("\n"); free(v);free(e);} return 0;}
