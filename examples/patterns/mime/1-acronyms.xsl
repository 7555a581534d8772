<?xml version="1.0" encoding="UTF-8"?>
<xsl:stylesheet version="1.0" xmlns:xsl="http://www.w3.org/1999/XSL/Transform"
    xmlns:m="http://www.freedesktop.org/standards/shared-mime-info" exclude-result-prefixes="m">
  <xsl:import href="../lines.xsl"/>

  <xsl:template match="/" mode="witnesses">
    <xsl:for-each select="//m:mime-type/m:acronym[starts-with(., 'XP')]">
      <xsl:variable name="acronym" select="."/>
      <xsl:for-each select="../m:expanded-acronym">
        <witness>
          <mime-type>
            <xsl:apply-templates select="../@type" mode="shown"/>
            <xsl:copy-of select="$acronym"/>
            <xsl:copy-of select="."/>
            <xsl:for-each select="../m:glob">
              <glob>
                <xsl:apply-templates select="@pattern" mode="shown"/>
              </glob>
            </xsl:for-each>
          </mime-type>
        </witness>
      </xsl:for-each>
    </xsl:for-each>
  </xsl:template>
</xsl:stylesheet>
