#include "pipeline.h"
/* sums /* of
   powers **/
int	pipeline ( const uint64_t*a0,uint64_t n0 , uint64_t i1 ){
uint64_t v0=0ULL;uint64_t v1
= 0ULL ;
  while(1){if(!(v0==n0)){}else{break;}
v1=a0[v0];/*/ a comment that is one */
      if ( (v1<i1)||(1ULL==v1) ) { EMIT (((v1/**/*v1)/2ULL) ) ;ENDROW( ); } else{return 1;}
   v0	=(v0+1ULL);}
return 0;}  /* the end */