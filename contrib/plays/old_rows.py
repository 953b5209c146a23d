"""Row files and their logs, as earlier programs left them: member 1 alone of circuit 7, which has released number 12."""
import base64
import zlib


def unpacked(text):
    """The bytes that were packed so."""
    return zlib.decompress(base64.b85decode(text))


# of 0.2.0, the file until the first good end: a database without a table
BARE = unpacked(
    'c-jjN^vNtqRY=P(%1ta$FlG>7U}9o$P*7li07eD`0I^xn_=JI8SqCqO7GM|!qhJ(_f>AIEM!_f;1*2dTjDk@x3P!;I0RV>=2NM')

# its log, of a station that was killed once it had released number 12: the tables, and the one row
LOG = unpacked(
    'c-rmTO=}ZD7{KwF-O>=TO~FIeUglCvAqpBnL<%Nhsj)HDWQ$Y}vPoAAHrcq@r1T)toCH6CA3!{K^8<(nZ=Mtn9u#a9yp`g`-gMWz(-c7vG5mjQ'
    'vb*!l4ErRfd6+%-V7w_#ZXXq5O8oFiA;h!jBkSE){m9M@z2M&lO|sMe=FYeI{F%nf{IyKUv(;_KEnA+7`=d2YTvST5NYSJDpRvCC{@B4zH6Bg`'
    '=P3aI00000{vEBem=Ed#&(D8+b>iOVx51iSM!pOG00000005&UB*#TqhQpzDNuXO7*gpIE{lebkt>5ey(EH{JuK#$yfHt`-B60r<00000FgiAG'
    'YN6@bS=rq1tiqaY6^nM&bKG05v)+HLr*cNZG?bZ0W(?IIQPE1hT(Di0&YH%8kyBT5=_`rcidr;QVuzHfx=y)NvseAT^~!3uS9Zx%+2u?o*6ZM`'
    'SNf*ucJSwDIG#N?KGtd*7!p&SRkc+zvy_}uc{7(znVXkoXnJNwHt+t*uI5=@$*HtY+CWb2Miq4`_OM)3>XMOKY=!65>AB#!)~pSu?hVPQSaOT?'
    'k~cJ&vOVx~^#-*9wSAFJGVOJ}-l+@hTz~pu;{M)NXOI8ievd##;=(@w00000_;0Enqg)sG@<gw{_;le|Yt6nZBD>TD0000002r0Jz~teO2>Xsp'
    'O_#bh#@`75000000000000000000004)znNNI`D')

# its log where the first start was cut off before the tables were made
BARE_LOG = unpacked(
    'c-k|sXKP~6eI&uaAi(e+2pAa{7(_R7G+%knEX;qs_Y4CJ000>_3)T')

# by the program, the layout, and how the station ended
EARLIER = {
    ('before 0.2.0', 1, 'killed'): (
        unpacked(
            'c-jjN^vNtqRY=P(%1ta$FlG>7U}9o$P*7li07eD`0I^xn_=JI8SqCqO7GM|!qhJ(_f>AIEM!_f;1*2dTjDk@x3P!;I0RV>=2NM'),
        unpacked(
            'c-rmTKWGzC9KiAS?n*<7HU)=DJNTAL3Q>?KE{Z1M(AYH5^g0v=xu$0cZF1pqX(<lUfY?c$b#%9rbaBvC92IvFx@HhWQS@T|U1*9Rh#0;fF1fq+'
            'd+%|-WO_f|oxeL;7pFcP7h*#E@JS)Wj`t?|c3(gC{7LSTf7@)5o%XS{cjvy`dGKoCMyBZ5>bB#SEKkM#(V8YMD<xW_=+XSoNZ>vgJKX7wouke3'
            'ga7~l00030j@DVsH|qlL@2#G_@YufJT(ir_XW<_J00000V7P?js0hn&IMgl)bn5~q_P)Mc{rGL_H~R(jz+BDiKi)5(jW3Ew-2Vaq0000CkL{aU'
            'XmVyo*0(%sdEK@O1-s%o?k(5Z3|{N0ypb>sWhRmtLj@x$TCSCrZC9nUrg6o{tLypnd?LT3=8UD-m{JwjDHW^sir=?ZUg`GA=1i4c%w%G{4$fvd'
            'Fip3EKgWjS+5O{Vt+u`)G38kmTO~8O<g8jS^XZhieNBcYr>A9o?N@eH&+>{+xqZ_5a%wlKs8hBF<)TtojnrH#d{Ld5Z9dn!wdK^j0XY?lZlPB6'
            '1}0Oo`+lz8pjM!IAks;uy{^|gb%EXQCtp0=Ydq`h@&DWJ5y(hf_y+(000030P1R$V>jIyiKAPX(U3uMFvo}PfL0td<0001hVW|s@9|?)DZ%S&q'
            ')U^@*P5=M^000000000000000003~fpVoFl&;'),
    ),
    ('before 0.2.0', 1, 'at rest'): (
        unpacked(
            'c-jjN^vNtqRY=P(%1ta$FlG>7U}9o$P*7li07eD`0I^xn_=JI8SqCqO7GM|!qhJ(_f>AIEM!_f;1*2dTjDk@x3P!;I0RV>=2NM'),
        unpacked(
            'c-rmTziSg=7{KxOy{ickZ2}He>+mkY7E(bnbg5tx4vmeeCf6Z|=ruhd*yO_H(o#A|GKnDg2Z$gjI0&vTLUHWe(Ln_foVw|z7xU|aDS{wk_<p$L'
            '?%wBpU-IOp_u;+8d!e>i_;^x?nE39KLJ0fSk%#-A^%JM|ADr=TJ593R{_^Jgh1j<bZ;RJ+70*_89JgwDD(R2bG;vWW(Iv%@=6|LF_rciV&TZa5'
            '-Z{qv000000Qh&b{$jpU7g&0;`|Nq<$x>&{E~8(Ce*gdg004l=5|$wmk&#HaR}vW11>Svm`r`F&tN5G!0(xMs&h;Pf7tp3xMKtMu0RR91047K4'
            'h8CWQ$7Orlv(`3jt6aA0p5xwfovq-to+%h9(@<tAoikK0qULJN>YDAUY~D0383lE%kiD8Jl+?0ON*q<H?mE><!(R9MHf!sHUilSM<yUjL#IS?2'
            'RSQfr=-|(>>3H_&_(ZpDWJp4JR^3+V+)8?070p66W45ly@XYM2Y~THvUBk1yic{;Iw2_>8jcU%R+2e9inaf6Ixf{Nq&d+y#*M_z2G`%r7l`C$!'
            'S@FguQ?*C_uHm3=pz%wjpG<FEuMgfYxNSVv_s;J0_xS(q_XuP(Df|Nf0001h|EB6O$#sE8i=X0qq0&xw&3+)F2h;@s00000n3TG}^s%sr_)ber'
            'm%28^;{*Tz0000000000000000001o`vJ9TK4$'),
    ),
    ('before 0.2.0', 2, 'killed'): (
        unpacked(
            'c-jjN^vNtqRY=P(%1ta$FlG>7U}9o$P*7li07eD`0I^xn_=JI8SqCqO7GM|!qhJ(_f>AIEM!_f;1*2dTjDk@x3P!;I0RV>=2NM'),
        unpacked(
            'c-rmTziSg=7{KxOE~RNCdI5!0y1ZHf4aA~ka43RFI5Z}vnw~>-C~0zPXmb}Xmr8Mv#z6<2931>3#9ah;6$B?i1Q!RP9Rxuf^wRu1j0%EC!}r4_'
            'm-l_%_a#p<y$|o5yfxVp$39F85fR@#iVz}rX#41!kAZ`apKd?%n(Z#7*B@)$fA=;PeX(>gUv*7+)plwnS0=sLswz%PDLND}pn9)~q4sd>*XB3w'
            '?r+~C0ssI2008_yYHu^&t_xgtj)$IneRZY1XIHc@!n*(f0002MSea5Lg`$K)YOq@p=+^~4z1QyL?zo@-a9$uVv{?J|U!NCH4=e~R>Ae8}0002?'
            'nysc9jK<^2?U-9yT{lbRvRQX+XT`K!XVc#bWQuyq(4~<|=XL3i$vLZ8TQwb-Eg1S4y(ljfv*%OAWtr2L6Z@pBJ9e$wFe@vL-LxwGQH4cA7B1!U'
            'iNOH-hBdTIe}K2fhV7dE`H4=SZ%TXQx@lc=uMbAmOXW4QBGdWBbX+bO#camdI;RAqGc!tSZ8z_RTXL(m)xD{{OuL<O&bG`^`N_;#J(KH%PstPU'
            '-EUCZw43gTJj+$5+^o7I6RerOpKvg#6KMPt=_S+M*9ZE~5j<L`KfL++TknkjzkZHD(UQWu000000N6A2ka4aHM8dPP^M_wP=<L~dgtkLn00000'
            '0Dv*63uxgf5%MV0!3p_1e1v}!000000000000000000000Q|-e$k;=E'),
    ),
    ('before 0.2.0', 2, 'at rest'): (
        unpacked(
            'c-jjN^vNtqRY=P(%1ta$FlG>7U}9o$P*7li07eD`0I^xn_=JI8SqCqO7GM|!qhJ(_f>AIEM!_f;1*2dTjDk@x3P!;I0RV>=2NM'),
        unpacked(
            'c-rmTziSg=7{KxOF12Z-CIyEUySxrU15uC+4nZ)9r^cRXP2x}#!ZkT<Xmb}Ymue<yb@0FF>ZmxXgNsWC7xfQtP>@PD1s(LR`AwsOAky&taN+X4'
            '&-=dQ$xZLWduQ&AZ;F%eXM~s%KRk*M;=%2$S8qNBj^-^r;Whm(rPCkzT73KZ*^AHlt9r#X<xShE8m^3cvsG1`lTx%OqDS>UV}0%Z*sq;he|W^d'
            'PYD130002+|EQhKyk8f%yB%zPy0G)u-?J-`FT%S300000z(|=;#)YDULTa#G66n?iwr*^@9}Yd&|8QO)(6^ZX{jbjpsNsZ&#KQ@m2><{9030|Q'
            '4K+9&jVkv~xW@9DX_QK4&9$APX}L~wuoXz>v}8e(g=9+C<X}wBS&izl>BvmBpk35*axs^=lFTj1d2K0nSjw7XS1Wb1Ty*S)Rql?;E)-<;ny$xs'
            '1ME9i-!k0+-Wuz+YYxtjwfY98_#@X$>z2FH8&xw(t7ciI^o3MZ<_oz@y0CFs2~N+>Dx0f&dDmUTt=LxkrVeD<?v!)3We&?vrY~vf`BwO>JRRNp'
            '1xC|uxI^+RRh&|z;tox)Y7YE`y-BS=eP5)LOnYA+=+p(CPQ6<Ue`~IE&iMc9_Xw0oTzD4%000002c{k}%5{M!JIB7Ce{{Xv+OzM9$S!pO00000'
            '07j%P5Sg41A&)W>9Fs36kMlGE00000000000000000000z;FBnD+Nqv'),
    ),
    ('0.2.0', 1, 'killed'): (BARE, LOG),
    ('0.3.0', 1, 'killed'): (
        unpacked(
            'c-rmR!A`<37zgln7zri{Hx69B3kf8|#BeqdmPL^XI>v!`Fk{qY5mqt^gd?1M0N=zX@Hu=CuMR;NiqWg&|4XxW>(_4IZq3)YF+C;dUIsl!QIVyX'
            'rm-_3wh&`$^YLEfp1-_4Ke68&j~)-hPCII{WHGz|000000Ko2;-fHo5Hp^!d<+QuPab3|@GPn!mI698$mQk_|vP)&tpy&+c{9&&x0;<$(<J_?5'
            '+NxZYtQJ*`R^foCAIP3J5S=h~=yz68wYp8UrfC+|0dnj|wpj&)dyJ$Ko9hdUXB$fjq@2E>vRN<ZsbO0c-JV|Zcsi5evxkrD2Fg*M^p~Bsk<;=a'
            '<)kmR<wE*}p;s5vr*x8^e^=L;$f4Sjlj{ZU&{JEJ>4}ZswO+KC7<`-gOlE#I=gBt~HUIzs00000*e!9s&k{V5h|kaeEXCLl^?x2&qp>gb|3AHH'
            'S^wwBA`2S;000000Kk8-Q}zFM)#K90'),
        unpacked(
            'c-rmJF-yZh6bJCTOR*?w1P7~K-l$Lo>EI+ZhC^#(lo*9>rX@qLX`oFDPSQ?-qfX)%aIW9PQFQPFNOwWJl3F`da25VP?s44v-{Xecx}55=^|uUT'
            '3v8h9+`GN`Tz(JkUXS(r$7|Kn2KC+lcsf0MSbXWtsV3L^Oz($YOnEge1S=4+1ZO{ls?^wdJp0{7`zm=O&(s0{000000QfID`#imr&GPPf>{V)h'
            'Gxp*jst-3|I?`|@xyFtqY1pLIsP0qIcIB>g=*TG^7*3f=vP|ZlG)qamO`B`E8KRnZ5w+scZTrwA`^2(xR1F%{Rxlw^L!lp5{KkZ#BxsJ3`Pnp^'
            'R#v#sxF%BgP5=M^00000_`5HSEmOJ'),
    ),
    ('0.3.0', 1, 'at rest'): (
        unpacked(
            'c-rmRF-yZh6bJCTv=}OCoGjSoEd>ijkj{c_2wEFkP18XfB*qhhCRfs{BDmPek0tnpy1AN~YEv!fs{DT(xl8WdB`@3Yx+iv^1YOBE^c2<DI@2_^'
            'N5oP&HZvLLGxz*?<K=<<Wc&7MHR-gq9y4mm1poj50002~kH<4jFP6)Ebg#UN8{zrB=qnkY$MP;a&Y6x?cP(=34cnsZ3~fcj@Iu7YY`fOJ<<POy'
            'JgPgV)Ur;i%S8QHhQUBwCb7fl@-wR4ajD(2?dmK*-bI;hJ_C|HZlx0Q>#OOrxg}LnUSCkd?ldaYb)BZ^J|1$tSSs<+^?P;$<*7hM(@vYqY5I`1'
            'WF!{lLgs;Gw$kZc+Nn&w>&Cm6L$x3$KZyNdpcW<*in-r4Ta-==zRi3jGdY`c<CP^1000000002~7o9J$0xuNw^!z_&#&}`<pJ&!+>`VRsS8tlu'
            '|G80PNdo`?00000_$&T&{eNvmXNANj*K$0k<=+4u;Liy'),
        unpacked(
            'c-k|sXKP~6eI&uaAiw|wj1FRlYlCX76N6Vt2Irp5^J0Jj0LY~X(*'),
    ),
    ('0.3.0', 2, 'killed'): (
        unpacked(
            'c-rmRzfZzI6bJCTYD7&GHV2kBXhIWWVi=8yKpI6VXsLsfDdp4#=#g^8Frth9mVc3(v*m|C6{9QU`^lx(>%DjF>vp-?wdpBA_cCZZigGN)G>x4S'
            'v9UEaGrV7)8}m25|IYq$*n8cHI&JruC3DdQ00000005TFAk-3jy3St?lv8gB$8|+V$>2`-D(J^YYemb*+XmVBf@x5Ejxv7Ou8V+5727y7EV{Bv'
            'mwD@!%EoPWo2V1Ww$~MnyFiA1V;WVd+ElqQ&Fm~dKKXOYOar1ddQypaes=sUmNJZN3I9Po&Z0Vw+Y}8dnAL(#HQOo`?ZE|4?4{HExjCx4s~qJ?'
            'f6{5ON+%B~BYm-`J}RCY#qxOigpTyl7dU+xss(krUf_nFT3BFP#D3u{X*|*WG4oZ-aBt3&A1rDB00000006L3Hu(nQd}~Wf4EO&m#n><B|9mb<'
            'W8cpI|MjZL`9DwQSkwRj000000G7o{o&SFV63E%W'),
        unpacked(
            'c-rmJPfEi;6bA5_G+6&s;?6=hPY_h7iWKQeXbgka#wclAbeWbcf=vTyBG^r_E6?EtJcA;54=)hCfH)<sc2O5Dh405ahI!vSW--;_!iep@6&YJ&'
            'V>P~+4w{e2%Zl3kc-W6*D>trb|9$K5IhVeEuF59YQl_PW8&gG2D+;R-u?%NF6j|!bc{cmq-pzgXMuo`*00000008h`+@10Kda1-m*Rk8~di~gq'
            '{jfLL6vGy}BgoN@O+k|;ZHGON>Xsu;giV)r{am+O)DSH)PKD9P;v+iPDK8Us-P<sUzi(R?4p~>GS*DI3brOG0B8LJmXnWC|p)BZ66RohwmLy)x'
            'tMpXZz;6No000000Kgx70b*rPX#'),
    ),
    ('0.3.0', 2, 'at rest'): (
        unpacked(
            'c-rmRF;Buk6bJCTY6Og0H%VNcgNY=>#4s8Yfi#L#)LI88Qp%|f&?DulVMG@{mVP2OXNyIlN}?;~|I4M<>%DjF>vp-z3)54AZe-AL6cyMy(=>KS'
            '#9|9<VsyVaHRdl`KFfZyd;h!|b=ulK(+klB00000008FAAk<PDxg3AmR!*ZW9M=_HC4;)~RnSk47Rr`Uv<<S0CDWkf9PRjFry&BW)NJF(u;|>X'
            'oEEKXsv6h%Wuk5%J6=yT>wygY=2ukh%%<9vY33&Z^1+{4<|`mt<6bI}%+JTq5-Fp|w(xJ&-6X2(xGmA7l6h9j(WPxw%J$%dr#3b>`D5#&?w)d#'
            'C;f4!B`O_1q#fytS@lu**eF-y=>yu!eSCq_m!X<br|Si7=&6|nc0}SAPLkq@-jA8jVn%y&uD`LU0RR910002Mzmn!ljPp!JOU3*DA=8I5&;R*U'
            'lE%KB|NrS#<MV&67g*E)00000008F2JfHvTD`}RA@N8<4URSo*I}YO3=l'),
        unpacked(
            'c-k|sXKP~6eI&uaAiw|wj1EjXlG~?8xV#r;4So|`vYr730Kd5iqy'),
    ),
}
