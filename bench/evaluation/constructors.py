import sys
from enum import Enum
Many = Enum('Many', ['C0', 'C1', 'C2', 'C3', 'C4', 'C5', 'C6', 'C7', 'C8', 'C9', 'C10', 'C11', 'C12', 'C13', 'C14', 'C15', 'C16', 'C17', 'C18', 'C19', 'C20', 'C21', 'C22', 'C23', 'C24', 'C25', 'C26', 'C27', 'C28', 'C29'])
C0 = Many.C0
C1 = Many.C1
C2 = Many.C2
C3 = Many.C3
C4 = Many.C4
C5 = Many.C5
C6 = Many.C6
C7 = Many.C7
C8 = Many.C8
C9 = Many.C9
C10 = Many.C10
C11 = Many.C11
C12 = Many.C12
C13 = Many.C13
C14 = Many.C14
C15 = Many.C15
C16 = Many.C16
C17 = Many.C17
C18 = Many.C18
C19 = Many.C19
C20 = Many.C20
C21 = Many.C21
C22 = Many.C22
C23 = Many.C23
C24 = Many.C24
C25 = Many.C25
C26 = Many.C26
C27 = Many.C27
C28 = Many.C28
C29 = Many.C29
def next_of(m):
    match m:
        case Many.C0:
            return C1
        case Many.C1:
            return C2
        case Many.C2:
            return C3
        case Many.C3:
            return C4
        case Many.C4:
            return C5
        case Many.C5:
            return C6
        case Many.C6:
            return C7
        case Many.C7:
            return C8
        case Many.C8:
            return C9
        case Many.C9:
            return C10
        case Many.C10:
            return C11
        case Many.C11:
            return C12
        case Many.C12:
            return C13
        case Many.C13:
            return C14
        case Many.C14:
            return C15
        case Many.C15:
            return C16
        case Many.C16:
            return C17
        case Many.C17:
            return C18
        case Many.C18:
            return C19
        case Many.C19:
            return C20
        case Many.C20:
            return C21
        case Many.C21:
            return C22
        case Many.C22:
            return C23
        case Many.C23:
            return C24
        case Many.C24:
            return C25
        case Many.C25:
            return C26
        case Many.C26:
            return C27
        case Many.C27:
            return C28
        case Many.C28:
            return C29
        case Many.C29:
            return C0
def turns(n, m):
    while not n < 1:
        n, m = n - 1, next_of(m)
    return m.value - 1
print(turns(int(sys.argv[1]), C0))
